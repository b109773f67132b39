"""Tests of the program as the gate has built it; README.md has the form of the pages."""
