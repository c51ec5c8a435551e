"""Scenes as text and as files: what tools/scene is made of. A module leans on those before it alone: lines (a text,
line by line), standins (rows and words), files (the bytes), scene (a scene of lines), explain (the text of a scene)."""
