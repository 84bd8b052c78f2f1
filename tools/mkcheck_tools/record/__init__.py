"""The program mkcheck-record: runs recipes under strace, and writes what each reads and writes."""
