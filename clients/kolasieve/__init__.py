"""What the clients of magicd share."""
