"""Tests of the prompt: front/ beside plain models, with breaks at each question."""
