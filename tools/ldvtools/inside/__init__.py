"""What `capture` and `playback` put into the process of a program: it is imported there before the program,
and has to be read by the Python of the program, from 3.9 on."""
