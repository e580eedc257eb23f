"""Converters between what people have and the files of the planner: texts of ovs-ofctl, Mininet and GraphML."""
