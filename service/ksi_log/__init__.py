"""The program `ksi-log`: logs are signed in blocks, and single lines of them are proved (docs/LOGS.md)."""
