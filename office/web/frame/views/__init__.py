"""The screens of the frame, each with its addresses."""
