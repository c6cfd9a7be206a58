# An image with the program alone. It was never built: no engine was at hand.
#   docker build -t mcrace .
#   docker run --rm --init -i --network host mcrace run 127.0.0.1:11211 < my.script
FROM debian:12-slim
COPY release/mcrace /usr/local/bin/mcrace
USER nobody
ENTRYPOINT ["mcrace"]
