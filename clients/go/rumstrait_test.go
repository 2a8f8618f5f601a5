package rumstrait_test

import (
	"bytes"
	"fmt"
	"strings"
	"sync"
	"testing"

	"rumstrait"
)

const text = "$TTL 60\n@ SOA ns h 1 3600 600 86400 30\nwww A 10.0.0.1\n"

const typeA, typeMX, typeCAA = 1, 15, 257

// newZone returns a zone that is closed with the test.
func newZone(t *testing.T) *rumstrait.Zone {
	t.Helper()
	zone, err := rumstrait.NewZone(text, "t.")
	if err != nil {
		t.Fatal(err)
	}
	t.Cleanup(func() { zone.Close() })
	return zone
}

func ExampleZone() {
	zone, err := rumstrait.NewZone(text, "t.")
	if err != nil {
		panic(err)
	}
	defer zone.Close()
	query, _ := rumstrait.Question{ID: 7, Name: "www.t.", Type: 1}.Query()
	reply, _ := zone.Serve(query, 1232)
	shown, _ := rumstrait.MessageText(reply)
	fmt.Print(shown)
	// Output:
	// ;; ->>HEADER<<- opcode: QUERY, status: NOERROR, id: 7
	// ;; flags: qr aa; QUERY: 1, ANSWER: 1, AUTHORITY: 0, ADDITIONAL: 0
	//
	// ;; QUESTION SECTION:
	// ;www.t. IN A
	//
	// ;; ANSWER SECTION:
	// www.t. 60 IN A 10.0.0.1
}

func TestFaultHasItsLine(t *testing.T) {
	sentence, line, err := rumstrait.ZoneFault("$TTL 60\n@ SOA ns h 1 1 1 1 1\nwww A 1\n", "t.")
	if err != nil || line != 3 || !strings.HasPrefix(sentence, "an invalid value for this type; ") {
		t.Fatalf("%q, %d, %v", sentence, line, err)
	}
	if sentence, line, err := rumstrait.ZoneFault(text, "t."); sentence != "" || line != 0 || err != nil {
		t.Fatalf("%q, %d, %v", sentence, line, err)
	}
	if _, _, err := rumstrait.ZoneFault(text, "a..b"); err != rumstrait.ErrInvalidName {
		t.Fatal(err)
	}
}

func TestQueryHasItsBytes(t *testing.T) {
	query, err := rumstrait.Question{ID: 0x1234, Name: "www.t", Type: typeA}.Query()
	wanted := []byte("\x12\x34\x00\x00\x00\x01\x00\x00\x00\x00\x00\x00\x03www\x01t\x00\x00\x01\x00\x01")
	if err != nil || !bytes.Equal(query, wanted) {
		t.Fatalf("%x, %v", query, err)
	}
	if again, err := rumstrait.EncodeAgain(query); err != nil || !bytes.Equal(again, query) {
		t.Fatalf("%x, %v", again, err)
	}
}

func TestUpdateIsTakenOnce(t *testing.T) {
	zone := newZone(t)
	update, err := rumstrait.NewUpdate("t")
	if err != nil {
		t.Fatal(err)
	}
	defer update.Close()
	for _, err := range []error{
		update.RequireName("www.t."),
		update.ForbidName("new.t."),
		update.RequireSet("www.t.", typeA),
		update.ForbidSet("www.t.", typeMX),
		update.RequireRecord("www.t.", typeA, "10.0.0.1"),
		update.Add("new.t.", 60, typeA, "10.0.0.3"),
		update.Add("t.", 30, typeMX, "10 new"),
		update.Add("t.", 30, typeCAA, `0 issue "ca.test"`),
		update.DeleteRecord("www.t.", typeA, "10.0.0.1"),
		update.DeleteSet("t.", typeCAA),
		update.DeleteName("old.t."),
	} {
		if err != nil {
			t.Fatal(err)
		}
	}
	request, err := update.Bytes(7)
	if err != nil {
		t.Fatal(err)
	}
	for _, wanted := range []byte{0, 3} {
		reply, err := zone.ServeStream(request)
		if err != nil || reply[3]&15 != wanted {
			t.Fatalf("code %d, %v", reply[3]&15, err)
		}
	}
	shown, _ := zone.Text()
	if !strings.Contains(shown, "t. 30 IN MX 10 new.t.\n") || strings.Contains(shown, "10.0.0.1\n") {
		t.Fatal(shown)
	}
}

func TestWhatIsWrongIsRefused(t *testing.T) {
	zone := newZone(t)
	update, _ := rumstrait.NewUpdate("t.")
	_, noName := rumstrait.NewUpdate("a..b")
	_, noZone := rumstrait.NewZone("www A 10.0.0.1\n", "t.")
	_, noEncoding := rumstrait.NewZone("; \xff\n", "t.")
	_, noMessage := rumstrait.MessageText([]byte("no message"))
	_, noLimit := zone.Serve([]byte("no message"), 511)
	noData := update.Add("t.", 60, typeA, "ten")
	if err := update.DeleteSet("t.", 41); err != nil {
		t.Fatal(err)
	}
	_, noUpdate := update.Bytes(7)
	update.Close()
	for _, it := range []struct{ wanted, err error }{
		{rumstrait.ErrInvalidName, noName},
		{rumstrait.ErrInvalidZone, noZone},
		{rumstrait.ErrInvalidEncoding, noEncoding},
		{rumstrait.ErrInvalidMessage, noMessage},
		{rumstrait.ErrInvalidLimit, noLimit},
		{rumstrait.ErrInvalidData, noData},
		{rumstrait.ErrInvalidUpdate, noUpdate},
		{rumstrait.ErrClosed, update.DeleteName("t.")},
	} {
		if it.err != it.wanted {
			t.Errorf("%v and not %v", it.err, it.wanted)
		}
	}
	if reply, err := zone.Serve([]byte("no message"), 512); reply != nil || err != nil {
		t.Errorf("%x, %v", reply, err)
	}
}

func TestGoroutinesShareAZone(t *testing.T) {
	zone := newZone(t)
	query, _ := rumstrait.Question{ID: 7, Name: "www.t.", Type: typeA}.Query()
	var group sync.WaitGroup
	for n := 0; n < 8; n++ {
		group.Add(1)
		go func() {
			defer group.Done()
			for count := 0; count < 1000; count++ {
				if reply, err := zone.Serve(query, 512); err != nil || reply[7] != 1 {
					t.Errorf("%x, %v", reply, err)
					return
				}
			}
		}()
	}
	group.Wait()
}

func BenchmarkServe(b *testing.B) {
	zone, _ := rumstrait.NewZone(text, "t.")
	defer zone.Close()
	query, _ := rumstrait.Question{ID: 7, Name: "www.t.", Type: typeA}.Query()
	b.ResetTimer()
	for n := 0; n < b.N; n++ {
		zone.Serve(query, 512)
	}
}
