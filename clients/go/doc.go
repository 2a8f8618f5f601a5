// Package rumstrait has DNS zones that are served in the process of a test, messages and updates, over the C library librumstrait.
//
// Requests and replies are messages in wire format, without the length that precedes a message in a stream.
//
// The library and its header are found by pkg-config, in the folder that ./library PREFIX of the repository writes:
//
//	PKG_CONFIG_PATH=PREFIX/lib/pkgconfig go build
//
// Values of this package may be used by several goroutines at once.
package rumstrait
