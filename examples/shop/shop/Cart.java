package shop;

import java.util.ArrayList;
import java.util.List;

public class Cart {
    private static final Logger LOG = null;
    private final List<String> names = new ArrayList<>();

    public int total(List<Integer> prices) {
        int sum = 0;
        for (Integer p : prices) {
            sum += p;
        }
        System.out.println(sum);
        LOG.info("total " + sum);
        return names.stream().mapToInt(s -> s.length()).sum() + sum;
    }
}
