"""What gwb reads and writes: commands, replies, refusals and listings."""
