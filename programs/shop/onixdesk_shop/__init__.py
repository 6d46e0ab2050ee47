"""The shop's programs beside its desk: inbox, copies, restores, renewals, prices."""
