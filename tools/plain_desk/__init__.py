"""What the proxy must answer, written a second time: the definitions, evaluated event by event over lists.

A history is the list of what a switch's connections brought, a view is a filter of it, and what a slice is answered is
looked up in its view. Nothing that is in a list changes.
"""
