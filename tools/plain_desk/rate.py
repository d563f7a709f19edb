"""The rate of a slice's messages (this proxy's own rule)."""


def conforms(settings, accepted, moment):
    """Whether a message may count at a timestamp, after those that counted at the accepted ones.

    For each of these, the messages from it on, this one too, are within the burst and what the rate gave since it.
    """
    after = range(len(accepted) + 1, 1, -1)
    return all(
        1000 * count <= 1000 * settings.burst + settings.rate * (moment - earlier)
        for count, earlier in zip(after, accepted)
    )
