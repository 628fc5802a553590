"""What takes times: each a module that python3 -m starts."""
