"""What `amctl lint` and `amctl check` find: one form of a finding, of a report in four formats, and of a baseline."""
