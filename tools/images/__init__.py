"""Makes and reads small images of UFS1 file systems, in both byte orders (docs/FORMATS.md)."""
