// A path through the field of a holder on the stack is no loss when that slot goes, since a local that the node does
// not write has the same holder.

class F {
    void read() {}
    void close() {}
}

class Holder {
    F f;
}

final class Main {
    public static void main(String[] words) {
        Holder h = new Holder();
        F a = new F();
        F[] box = new F[1];
        if (words.length > 1) {
            // So the array may have it, for whoever does not look at the order.
            box[0] = a;
            return;
        }
        h.f = a;
        F b = h.f;
        box[0].close();
        a.read();
    }
}
