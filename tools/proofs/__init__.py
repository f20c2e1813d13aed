"""Makes the proof files that follow the code's shape: of the cycle of calls, of single functions, and of the thin functions."""
