"""Finds the frames of an interrogator and the replies of tags in a recording: examples/explain_capture runs it. It is not proved.

What it finds it gives to the program's own `decode`, line by line: a `pie` line for each frame, a `command` line for its bits, and a `heard`
line for the levels that came back. The parts, in the order in which a recording goes through them:

    reading     reads WAV, raw samples and SigMF; `logic` reads two logic channels from CSV, VCD and sigrok sessions
    waves       the wave of the interrogator, as the edges of its lows, and the wave of the tags, as samples
    frames      finds frames among the lows, and puts their lengths back onto the frame's own Tari, RTcal and TRcal
    codes       FM0 and Miller: leads, symbols, and which symbol may follow which
    search      finds where a stream begins, by correlation with its lead at many clocks
    streams     follows the clocks through streams, many side by side, and decides their levels by the trellis of their code
    explain     puts it together, and prints a line for each frame

`words` has what the helpers are asked, and needs no numpy; `making` makes recordings of runs, `possible` computes what a receiver that knows clock and amplitude could reach, and `table` measures.
"""
