package ksi

import (
	"crypto/sha256"
	"encoding/hex"
	"encoding/json"
	"io"
	"os"
	"path/filepath"
	"strings"
	"testing"
	"unsafe"
)

func read(t testing.TB, name string) []byte {
	b, err := os.ReadFile("../samples/" + name)
	if err != nil {
		t.Fatal(err)
	}
	return b
}

func TestVerify(t *testing.T) {
	s, p, d := read(t, "deed.ksig"), read(t, "publications.bin"), read(t, "deed.txt")
	for _, row := range []struct {
		signature, document, publications []byte
		says                              string
	}{
		{s, d, p, "accepted 2023-11-14T22:13:20Z"},
		{s, []byte("other"), p, "refused V1"},
		{s, d, p[:len(p)-94], "refused V13"},
		{s[:len(s)-1], d, p, "malformed signature S1"},
		{nil, d, p, "malformed signature S1"},
		{s, d, nil, "malformed publications Q1"},
	} {
		if is := Verify(row.signature, Digest(row.document), row.publications).String(); is != row.says {
			t.Errorf("%s, and not %s", is, row.says)
		}
	}
}

func TestPublication(t *testing.T) {
	s, p, d := read(t, "deed.ksig"), read(t, "publications.bin"), read(t, "deed.txt")
	is := Verify(s, Digest(d), p).Publication()
	if is.Second != 0x6553ff0f || is.Root != *(*[32]byte)(p[len(p)-79 : len(p)-47]) {
		t.Errorf("%v", is)
	}
	if second, found := Second(s); second != 1700000000 || !found {
		t.Errorf("second %d", second)
	}
	if _, found := Second(p); found {
		t.Error("publications have a second")
	}
}

func TestFront(t *testing.T) {
	f, c := read(t, "front.bin"), read(t, "calendar.bin")
	old := Publication{1700000000, *(*[32]byte)(c[len(c)-79 : len(c)-47])}
	new := Publication{1700003599, *(*[32]byte)(c[len(c)-32:])}
	for _, row := range []struct {
		front    []byte
		old, new Publication
		says     string
	}{
		{f, old, new, "accepted"},
		{f[:len(f)-35], old, new, "refused F1"},
		{f, Publication{old.Second, new.Root}, new, "refused F2"},
		{f, old, Publication{new.Second, old.Root}, "refused F3"},
		{f, new, old, "refused F5"},
		{nil, old, new, "malformed front C1"},
		{f[:len(f)-1], old, new, "malformed front C2"},
	} {
		if is := CheckFront(row.front, row.old, row.new).String(); is != row.says {
			t.Errorf("%s, and not %s", is, row.says)
		}
	}
}

func bytesOf(t *testing.T, text string) []byte {
	b, err := hex.DecodeString(text)
	if err != nil {
		t.Fatal(err)
	}
	return b
}

// The test cases for all verifiers: the answer's code, or the accepted second.
func TestVectors(t *testing.T) {
	paths, _ := filepath.Glob("../../vectors/*.json")
	if len(paths) == 0 {
		t.Fatal("no vectors")
	}
	for _, path := range paths {
		text, err := os.ReadFile(path)
		if err != nil {
			t.Fatal(err)
		}
		var cases []struct{ Name, Signature, Hash, Publications, Prints string }
		if err := json.Unmarshal(text, &cases); err != nil {
			t.Fatal(err)
		}
		for _, it := range cases {
			answer := Verify(bytesOf(t, it.Signature), *(*[32]byte)(bytesOf(t, it.Hash)), bytesOf(t, it.Publications))
			words := strings.Fields(it.Prints)
			code := words[1]
			if words[0] == "malformed" {
				code = words[2]
			}
			is := strings.Fields(answer.String())
			if is[0] != words[0] || is[0] != "accepted" && is[len(is)-1] != code {
				t.Errorf("%s: %s, and not %s", it.Name, answer, it.Prints)
			}
		}
	}
}

func TestDigest(t *testing.T) {
	s := read(t, "deed.ksig")
	for n := range s {
		if Digest(s[:n]) != sha256.Sum256(s[:n]) {
			t.Errorf("the digest of %d bytes", n)
		}
	}
}

// The hash of pieces, which goes on after its sum was read, and begins again after Reset.
func TestHasher(t *testing.T) {
	s := read(t, "deed.ksig")
	h := NewHasher()
	for n := 0; n < len(s); n += 37 {
		if _, err := io.Copy(h, strings.NewReader(string(s[n:min(n+37, len(s))]))); err != nil {
			t.Fatal(err)
		}
		if want := sha256.Sum256(s[:min(n+37, len(s))]); string(h.Sum([]byte("x"))) != "x"+string(want[:]) {
			t.Errorf("the sum after %d bytes", n+37)
		}
	}
	h.Reset()
	if none := sha256.Sum256(nil); string(h.Sum(nil)) != string(none[:]) || h.Size() != 32 || h.BlockSize() != 64 {
		t.Error("the sum after a reset")
	}
}

func min(a, b int) int {
	if a < b {
		return a
	}
	return b
}

func TestSteps(t *testing.T) {
	steps := Steps(read(t, "deed.ksig"))
	if len(steps) != 32 || unsafe.Sizeof(steps[0]) != 4200 || unsafe.Sizeof(Answer{}) != 120 {
		t.Fatalf("%d steps", len(steps))
	}
	if steps[0].Node != sha256.Sum256(read(t, "deed.txt")) {
		t.Error("the first node")
	}
	for k := 1; k < len(steps); k++ {
		if steps[k].Node != steps[k-1].Join {
			t.Errorf("the node of step %d", k)
		}
	}
}

func BenchmarkVerify(b *testing.B) {
	s, p, d := read(b, "deed.ksig"), read(b, "publications.bin"), Digest(read(b, "deed.txt"))
	for i := 0; i < b.N; i++ {
		Verify(s, d, p)
	}
}
