"""From intent to files: what changes for whom, what uses a link, a policy of what networks do, and a first draft of new
rules."""
