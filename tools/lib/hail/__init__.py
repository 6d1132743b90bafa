"""What the companions of hail that are written in Python share."""
