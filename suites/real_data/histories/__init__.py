"""Histories, and the repositories that the installed Git makes of them."""
