"""What must find nothing: each a module that python3 -m starts."""
