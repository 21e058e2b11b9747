"""What an agent decides: a machine of states with no clock, socket, process or thread. Events in, actions out."""
