"""A computation of what `netdb run` does, of its own, written from docs/: it takes a design, scripts and the order of the calls from
a report, and says what that report has to be."""
