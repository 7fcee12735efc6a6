"""KiCad boards into Contour's board text, and Contour's replies into tracks of a KiCad board.

Boards are read and written by KiCad's own module `pcbnew`. What is written was accepted by `contour check`
first, and is judged by KiCad's rule check and connectivity afterwards.
"""
