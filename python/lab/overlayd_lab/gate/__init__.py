"""What the gate asks of the tree: of contracts, of wrong bodies, of READMEs, of each file of code."""
