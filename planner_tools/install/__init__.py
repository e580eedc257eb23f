"""What puts the planner on a machine: the folders of an installation, manual pages, completions and a Debian
package."""
