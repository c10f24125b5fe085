"""What keeps registers on a machine: setting up, second copies, restore drills, status."""
