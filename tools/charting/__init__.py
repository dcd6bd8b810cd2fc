"""Sequence charts of what the links of EuroRadio carried.

| Module | What it does |
|---|---|
| model | what a chart holds: rows, frames, notes at the ends, lines across |
| labels | a frame, a message and a reason in the standards' words |
| recorded | charts of a text alone: what a drill prints, a trace or recording, a tap |
| steps | reads a drill file |
| stations | which frames an end may send at an event, by the rules of balanced mode |
| followed | charts of a drill's text beside its file: each step of the line where it happened |
| folding | long runs of rows of the same kind |
| svg | draws a chart |
| page | all charts on one page, with a search |

Frames are read by the package `decoding`.
"""
