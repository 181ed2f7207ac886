# This recipe was not tried: there was no docker where it was written.
#   docker build -t tpmsim . && docker run -i tpmsim run - <examples/measured_boot.tpm
FROM debian:12 AS made
RUN apt-get update && apt-get install -y --no-install-recommends gcc libc6-dev libtpms-dev libtss2-dev python3
COPY . /tpmsim
RUN /tpmsim/tools/deb.sh /package
FROM debian:12-slim
COPY --from=made /package /package
RUN apt-get update && apt-get install -y --no-install-recommends /package/*.deb && rm -rf /package /var/lib/apt/lists/*
RUN useradd --create-home tpm
USER tpm
WORKDIR /home/tpm
ENTRYPOINT ["/usr/bin/tpmsim"]
