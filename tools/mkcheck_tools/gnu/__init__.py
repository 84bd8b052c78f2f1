"""Where GNU make reads a makefile otherwise than POSIX defines it."""
