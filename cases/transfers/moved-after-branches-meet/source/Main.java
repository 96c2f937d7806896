// A local to which the value of a slot is moved has what that slot had: the path through the field is not lost, also
// where no other slot has the same holder.

class F {
    void read() {}
    void close() {}
}

class Holder {
    F f;
}

final class Main {
    public static void main(String[] words) {
        Holder h = new Holder();
        F a = new F();
        F[] box = new F[1];
        if (words.length > 1) {
            // So the array may have it, for whoever does not look at the order.
            box[0] = a;
            return;
        }
        h.f = a;
        Holder g = words.length > 0 ? h : h;
        box[0].close();
        a.read();
    }
}
