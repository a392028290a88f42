"""The board: a plan under one's hands, in a browser, with the program behind each number.

`state.Board` is the plan with its changes, `server.serve` the address that a browser opens; `static` has the page.
"""
