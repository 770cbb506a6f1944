"""Replays in the formats of other tools: ./export (docs/export.md)."""
