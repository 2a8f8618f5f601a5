# An image with the programs nameserver, lookup, zonecheck and stub. It copies what ./install left in the folder image:
#
#     ./install image               (or: ./install image --unproved)
#     podman build --tag rumstrait .
#     podman run --rm --init --network host --volume "$PWD/crates/examples/data:/zones:ro" rumstrait nameserver /zones/first.zone
#
# The server answers at addresses of its own alone, so it has the network of the host; --init has signals end it.
FROM docker.io/library/debian:bookworm-slim
COPY image/ /usr/
USER nobody
WORKDIR /zones
CMD ["nameserver", "--help"]
