"""A language server: theories are checked as they are typed, in any editor that speaks LSP 3.17.

docs/LANGUAGE_SERVER.md tells how editors are set up and what they show.
"""
