# What a machine needs beside the toolchain, which is not in it. `./test.sh docs` reads this file, and no test builds it.
#   docker build -t hibitset . && docker run --rm -v KIT:/kit -v "$PWD":/hibitset hibitset
# KIT is the folder of a toolchain that .ci/kit names.
FROM debian:13
COPY .ci/packages /packages
RUN apt-get update && apt-get install -y --no-install-recommends cargo rustc $(cat /packages)
ENV PATH=/kit/bin:$PATH
WORKDIR /hibitset
CMD ["./test.sh"]
