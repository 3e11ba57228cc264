"""Pictures: theories as pages, a session as a timeline, a session in a terminal as it runs."""
