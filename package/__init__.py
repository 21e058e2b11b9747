"""Makes packages of the programs and the agent."""
