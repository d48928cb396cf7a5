"""Tests of the page in a browser: they need Debian's chromium, chromium-driver, python3-selenium and graphviz."""
