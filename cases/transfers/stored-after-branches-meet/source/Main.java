// Where a store writes a holder that no local is known to have, the path that it adds goes with the slot on the stack,
// and is lost: the object is closed by a local of the holder.

class F {
    void read() {}
    void close() {}
}

class Holder {
    F f;
}

final class Main {
    public static void main(String[] words) {
        Holder h = new Holder();
        F a = new F();
        (words.length > 0 ? h : h).f = a;
        h.f.close();
        a.read();
    }
}
