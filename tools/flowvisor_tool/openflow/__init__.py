"""The wire of OpenFlow 1.0 (specification 1.0.0, section 5), as far as it is read and printed."""
