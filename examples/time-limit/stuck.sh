#!/bin/sh
# A worker process that never answers.
exec sleep 600
