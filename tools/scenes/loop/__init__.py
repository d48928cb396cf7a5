"""A loop around `explore run`: a shell, and a page with pictures.

It stands beside the proved core and proves nothing. It keeps a script, runs all of it again after each step, and shows what
came new. What it says by itself stands on lines that begin with `~`; all other lines are the program's.

From the bottom up: `lexer` and `outline` look at a model's text; `source` reads a file; `program` runs the program; `replies`
and `scenario` take its answers apart; `likeness` compares scenarios; `cures`, `forms` and `faults` explain a refusal; `session` keeps the script; `views` and
`drawing` show a scenario; `out`, `shell`, `words` and `reading` are the shell, `tab` and `server` the page, and `main` begins.
"""
