// verify SIGNATURE DOCUMENT PUBLICATIONS prints the second of an accepted signature, or the check that failed.
package main

import (
	"fmt"
	"io"
	"ksi"
	"os"
)

func fails(err error) {
	if err != nil {
		fmt.Fprintln(os.Stderr, err)
		os.Exit(4)
	}
}

func read(name string) []byte {
	bytes, err := os.ReadFile(name)
	fails(err)
	return bytes
}

// The SHA-256 of a document of any size.
func digest(name string) (digest [32]byte) {
	file, err := os.Open(name)
	fails(err)
	defer file.Close()
	hash := ksi.NewHasher()
	_, err = io.Copy(hash, file)
	fails(err)
	copy(digest[:], hash.Sum(nil))
	return digest
}

func main() {
	if len(os.Args) != 4 {
		os.Exit(2)
	}
	answer := ksi.Verify(read(os.Args[1]), digest(os.Args[2]), read(os.Args[3]))
	_, err := fmt.Println(answer)
	fails(err)
	os.Exit(int(answer.Status))
}
