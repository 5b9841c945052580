"""What tools/rescue is made of: a volume that can be damaged, the recipes of docs/READING.md, and the damages."""
