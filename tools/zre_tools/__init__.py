"""What the tools beside the program share: how they run it, and how they read captures, streams and schedules."""
