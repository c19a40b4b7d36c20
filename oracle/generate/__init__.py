"""Seeded generators of hard inputs."""
