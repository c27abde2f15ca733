"""The cases of crates/tool_cases: what goes into its program, and what it must answer."""
