"""What the tools share: captures of every form, configurations, journals, frames, and what a run did."""
