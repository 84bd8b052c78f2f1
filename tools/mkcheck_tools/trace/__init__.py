"""What strace writes: its lines, the calls in them, and the files that these reach."""
