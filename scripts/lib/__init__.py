"""What several scripts and benches share. It needs Python 3.11 and nothing else."""
